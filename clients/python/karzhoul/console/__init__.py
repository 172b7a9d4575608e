"""`karzhoul console`: a store in a browser. `command` has its words, `serving` who is answered,
`actions` what, `store` reads, `changing` changes, and `page.html` is the page."""
