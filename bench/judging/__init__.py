"""How good layouts are, judged against the lines that PDF files themselves tell: what `bench/quality` is made of."""
