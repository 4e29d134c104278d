<?php
class greenTest extends PHPUnit\Framework\TestCase {
    function testAdds() { $this->assertSame(2, 1 + 1); }
}
