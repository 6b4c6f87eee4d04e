permit(principal == User::"bob", action, resource);
forbid(principal, action, resource) when { resource has secret && resource.secret };
