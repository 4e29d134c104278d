Given(/^a store$/) { @kept = 1 }
Given(/^a later store$/) { pending "later" }
Then(/^it keeps (\d+)$/) { |number| raise "it keeps #{@kept}" unless @kept == number.to_i }
