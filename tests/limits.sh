# The most words that a sheet has, by 01's "The deal sheet" and 02's S-1, S-3, S-5 and S-9, the most bytes of its file, and the rows of a block, by S-7: for the
# trials, which read it with `.`. Each of the four sections has a count.
facts_most=7
rows_most=1000
row_words=4
block_rows=50
tranches_most=32
tranche_words=7
irb_words=6
sheet_words_most=$((4 + facts_most + rows_most * row_words + tranches_most * tranche_words + irb_words))
sheet_bytes_most=$((8 * sheet_words_most))
