procedure Main is begin Initialize; end Main;
