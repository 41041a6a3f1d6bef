# A file that does not compile: _HANDLER=broken.handler.
handler() {
  if true; then
}
