@id("policy1") permit(principal, action, resource);
permit(principal is User, action, resource);
