permit(principal, action, resource);
