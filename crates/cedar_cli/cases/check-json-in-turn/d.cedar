forbid(principal, action, resource);
