"""Where in the files a refusal of capfw is, and what stands there: what explain.py knows of each kind of file."""
