# pages for people: links that lead somewhere, sentences and lines that aren't long
cd ..
python3 cases/files/documents.py *.md docs/*.md crates/*/README.md examples/*/README.md python/README.md | sed 's/^[0-9]* pages/all pages/'
