permit(principal, action == Action::"read", resource) when { resource.owner == principal };
permit(principal, action == Action::"has", resource) when { resource has owner && resource.owner == principal };
permit(principal, action == Action::"path", resource) when { resource has info.size && resource.info.size > 3 };
permit(principal, action == Action::"key", resource) when { resource["a b"] };
permit(principal, action == Action::"context", resource) when { context.on };
permit(principal, action == Action::"absent", resource) when { !(resource has owner) };
