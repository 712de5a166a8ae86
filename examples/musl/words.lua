local words = {}
for word in ("the quick brown fox"):gmatch("%a+") do
  words[#words + 1] = word:upper()
end
table.sort(words)
print(table.concat(words, " "), 10 / 3)
