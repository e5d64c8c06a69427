with Ada.Finalization; with Ada.Text_IO; with Ada.Unchecked_Deallocation;
procedure Main is
   type Seed is record Kind : Integer := 2; end record;
   type Root is access Seed;
   type Pot is new Ada.Finalization.Controlled with record Plant : Root; end record;
   overriding procedure Adjust (Object : in out Pot);
   overriding procedure Finalize (Object : in out Pot);
   procedure Free is new Ada.Unchecked_Deallocation (Seed, Root);
   overriding procedure Adjust (Object : in out Pot) is
   begin
      if Object.Plant /= null then
         Object.Plant := new Seed'(Kind => Object.Plant.Kind);
      else
         Object.Plant := null;
      end if;
   exception
      when others => Object.Plant := null;
   end Adjust;
   overriding procedure Finalize (Object : in out Pot) is
   begin
      Free (Object.Plant);
   end Finalize;
   procedure Exchange (One : in out Pot; Other : in out Pot) is
      Third : Pot := One;
   begin
      One := Other;
      Other := Third;
   end Exchange;
   Big   : Pot;
   Small : Pot;
begin
   Big.Plant := new Seed'(Kind => 3);
   Exchange (Big, Small);
   if Big.Plant = null then
      Ada.Text_IO.Put_Line (Integer'Image (Small.Plant.Kind));
   end if;
end Main;
