@id("staff by day")
permit(principal in Group::"staff", action, resource)
when { context.hour < 18 };

forbid(principal, action, resource)
when { resource has secret && resource.secret };
