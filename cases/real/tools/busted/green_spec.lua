it("adds", function() assert.are.equal(2, 1 + 1) end)
