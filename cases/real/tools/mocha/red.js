const assert = require("assert");
describe("Array", () => {
  it("finds", () => assert.equal([1, 2].indexOf(2), 1));
  it("fails", () => assert.deepEqual({ a: [1, 2] }, { a: [1, 3] }));
  it("is pending");
  describe("with a hook", () => {
    before(() => { throw new Error("cannot set up <it>"); });
    it("never runs", () => {});
  });
});
