"""The tool behind ./bench: sessions in text, their records, and what the bench program's numbers mean."""
