"""The grammar of docs/language.md: its tokens, a plain recognizer of it, and lists of tokens to try it on."""
