"""What storetool answers: lists of up to four calls out of five, the outside vectors, index parts, tantivy's tests."""

NEEDS = ("storetool",)
