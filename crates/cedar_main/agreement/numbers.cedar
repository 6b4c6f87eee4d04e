permit(principal, action == Action::"less", resource) when { context.n < 10 };
permit(principal, action == Action::"sum", resource) when { context.n + context.m == 7 };
permit(principal, action == Action::"negated", resource) when { -context.n == 3 };
permit(principal, action == Action::"product", resource) when { context.n * 2 >= 6 };
