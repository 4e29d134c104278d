use Test::More tests => 2;
ok(1, "adds");
TODO: { local $TODO = "later"; ok(1, "to do, and passes"); }
