// wrong
permit(principal, action, resource) when { context.a = 1 };
