forbid(principal == ?principal, action, resource);
permit(principal == User::"bob", action, resource);
