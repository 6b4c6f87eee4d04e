permit(principal, action, resource)
when { principal == User::"alice" && context.mfa };
