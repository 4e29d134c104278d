<?php
class redTest extends PHPUnit\Framework\TestCase {
    function testAdds() { $this->assertSame(2, 1 + 1); }
    function testFails() { $this->assertSame(1, 2); }
    function testIsSkipped() { $this->markTestSkipped('no network'); }
}
