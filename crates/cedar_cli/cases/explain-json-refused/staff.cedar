@id("staff by day")
permit(principal in Group::"staff", action, resource)
when { context.hour < 18 };
