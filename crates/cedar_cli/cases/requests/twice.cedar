@id("x") permit(principal, action, resource);
@id("x") forbid(principal, action, resource);
