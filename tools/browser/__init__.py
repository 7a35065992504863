"""A headless Chromium, driven over pipes."""
