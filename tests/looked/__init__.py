"""What a page in Chromium and a log of SARIF are looked at for."""
