permit(principal, action);
