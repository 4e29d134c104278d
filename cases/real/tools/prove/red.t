use Test::More tests => 5;
ok(1, "adds");
is(1 + 1, 3, "fails");
SKIP: { skip "no network", 1; }
TODO: { local $TODO = "later"; ok(0, "to do"); }
TODO: { local $TODO = "later"; ok(1, "to do, and passes"); }
