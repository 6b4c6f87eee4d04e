permit(principal in Group::"staff", action, resource);
