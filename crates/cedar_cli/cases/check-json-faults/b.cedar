permit(principal, action, resource) when { context.hour = 9 };
