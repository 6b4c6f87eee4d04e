@id("all")
permit(principal, action, resource);
forbid(principal, action, resource) when { context.bad };
forbid(principal, action == Action::"x", resource) when { principal.missing };
