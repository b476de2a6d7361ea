"""The site: the documents as pages in which scripts, programs and exercises run."""
