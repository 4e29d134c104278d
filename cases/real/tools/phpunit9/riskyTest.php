<?php
class riskyTest extends PHPUnit\Framework\TestCase {
    function testHasNoAssertion() {}
}
