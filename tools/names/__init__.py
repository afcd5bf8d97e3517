"""A plain second reading of the rules of names: what the phase of names has to answer for a module, as far as its tokens, its
grammar and its names decide. It shares no code with the program, so that rows can be tried on both."""
