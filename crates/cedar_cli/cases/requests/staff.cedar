@id("staff may read")
permit(principal in Group::"staff", action == Action::"read", resource);

permit(principal, action == Action::"write", resource)
when { resource.owner == principal };

@id("nobody at night")
forbid(principal, action, resource)
when { context.hour >= 22 };
