procedure Main is begin N := 1; end Main;
