"""A plain second reading of the rules of types: what the phase of types, which the program is still to get, has to answer for a
module that breaks no rule of an earlier phase. It shares no code with the program, so that rows can be tried on both."""
