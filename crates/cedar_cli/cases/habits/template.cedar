permit(principal == ?principal, action, resource);
