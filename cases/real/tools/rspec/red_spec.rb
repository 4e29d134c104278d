RSpec.describe "a store" do
  it("adds") { expect(1 + 1).to eq 2 }
  it("fails") { expect(1).to eq 2 }
  it "is pending"
end
