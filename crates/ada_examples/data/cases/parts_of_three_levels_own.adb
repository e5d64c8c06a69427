with Ada.Finalization; with Ada.Text_IO; with Ada.Unchecked_Deallocation;
procedure Main is
   type Seed is record Value : Integer := 0; end record;
   type Grain is access Seed;
   type Core is new Ada.Finalization.Controlled with record Held : Grain; end record;
   overriding procedure Adjust (Object : in out Core);
   overriding procedure Finalize (Object : in out Core);
   type Shell is new Ada.Finalization.Controlled with record Held : Grain; Inside : Core; end record;
   overriding procedure Adjust (Object : in out Shell);
   overriding procedure Finalize (Object : in out Shell);
   type Husk is new Ada.Finalization.Controlled with record Inside : Shell; Held : Grain; end record;
   overriding procedure Adjust (Object : in out Husk);
   overriding procedure Finalize (Object : in out Husk);
   procedure Free is new Ada.Unchecked_Deallocation (Seed, Grain);
   overriding procedure Adjust (Object : in out Core) is
   begin
      Object.Held := new Seed'(Value => Object.Held.Value + 1);
   exception
      when others => Object.Held := null;
   end Adjust;
   overriding procedure Finalize (Object : in out Core) is
   begin
      Ada.Text_IO.Put_Line ("core");
      Free (Object.Held);
   end Finalize;
   overriding procedure Adjust (Object : in out Shell) is
   begin
      Object.Held := new Seed'(Value => Object.Held.Value + Object.Inside.Held.Value);
   exception
      when others => Object.Held := null;
   end Adjust;
   overriding procedure Finalize (Object : in out Shell) is
   begin
      Ada.Text_IO.Put_Line ("shell");
      Free (Object.Held);
   end Finalize;
   overriding procedure Adjust (Object : in out Husk) is
   begin
      Object.Held := new Seed'(Value => Object.Held.Value + Object.Inside.Held.Value);
   exception
      when others => Object.Held := null;
   end Adjust;
   overriding procedure Finalize (Object : in out Husk) is
   begin
      Ada.Text_IO.Put_Line ("husk");
      Free (Object.Held);
   end Finalize;
   Corn : Husk;
   Rice : Husk;
begin
   Corn.Inside.Inside.Held := new Seed'(Value => 1);
   Corn.Inside.Held := new Seed'(Value => 10);
   Corn.Held := new Seed'(Value => 100);
   Rice := Corn;
   Ada.Text_IO.Put_Line (Integer'Image (Rice.Inside.Inside.Held.Value));
   Ada.Text_IO.Put_Line (Integer'Image (Rice.Inside.Held.Value));
   Ada.Text_IO.Put_Line (Integer'Image (Rice.Held.Value));
   Ada.Text_IO.Put_Line (Integer'Image (Corn.Held.Value));
end Main;
