permit(principal, action == Action::"tag", resource) when { principal.hasTag("role") && principal.getTag("role") == "admin" };
permit(principal, action == Action::"bare", resource) when { principal.getTag("role") == "admin" };
permit(principal, action == Action::"is", resource) when { principal is App::User };
permit(principal, action == Action::"is in", resource) when { principal is User in Group::"g" };
