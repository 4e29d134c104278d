RSpec.describe "a store" do
  after(:all) { raise "cannot tidy up" }
  it("adds") { expect(1 + 1).to eq 2 }
end
