"""A plain second reader of modules: their tokens, and their trees. It shares no code with the program, so that rows of what is
judged on trees can be tried on both."""
