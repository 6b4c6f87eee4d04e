@id("one") @note("x \"y\"")
permit(principal, action, resource);
  forbid(principal == ?principal, action, resource);
