const { test } = require("node:test"), assert = require("node:assert");
test("adds", () => assert.equal(1 + 1, 2));
test("fails", () => assert.equal(1, 2));
test("is skipped", { skip: "no network" }, () => {});
