"""The parts of tools/book: a folder of static pages, made from the tree."""
