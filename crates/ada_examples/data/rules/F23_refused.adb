procedure Main is begin exit; end Main;
