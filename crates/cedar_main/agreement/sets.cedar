permit(principal, action == Action::"contains", resource) when { [1, 2, context.x].contains(context.y) };
permit(principal, action == Action::"all", resource) when { context.a.containsAll(context.b) };
permit(principal, action == Action::"any", resource) when { context.a.containsAny(context.b) };
permit(principal, action == Action::"empty", resource) when { context.a.isEmpty() };
permit(principal, action == Action::"equal", resource) when { context.a == [2, 1] };
