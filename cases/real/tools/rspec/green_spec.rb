RSpec.describe("a store") { it("adds") { expect(1 + 1).to eq 2 } }
