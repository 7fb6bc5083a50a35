"""From a scan or a PDF to text: what the programs `prepare`, `pages`, `to` and `ocr` share."""
