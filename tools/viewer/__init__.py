"""The viewer of `tools/view`: an hOCR document drawn over the picture of its page."""
