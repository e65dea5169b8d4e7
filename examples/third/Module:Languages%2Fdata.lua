-- Data: read by mw.loadData once for a page, and never written.
return {
  de = {name = 'German'},
  en = {name = 'English'},
}
