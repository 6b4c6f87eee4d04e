permit(principal, action == Action::"like", resource) when { context.s like "a*c" };
permit(principal, action == Action::"star", resource) when { context.s like "a\*c" };
permit(principal, action == Action::"equal", resource) when { context.s == "é\n" };
